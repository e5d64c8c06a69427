with Ada.Finalization; with Ada.Text_IO;
procedure Main is
   type Car;
   type Hook is access Car;
   type Car is record Load : Integer := 0; Behind : Hook; end record;
   type Train is new Ada.Finalization.Controlled with record Length : Integer := 0; Engine : Hook; end record;
   overriding procedure Adjust (Object : in out Train);
   overriding procedure Adjust (Object : in out Train) is
      Seen : access Car := Object.Engine;
   begin
      Object.Length := 0;
      while Seen /= null loop
         Object.Length := Object.Length + 1;
         Seen := Seen.Behind;
      end loop;
      Object.Engine := null;
   exception
      when Constraint_Error => Object.Engine := null;
   end Adjust;
   Long  : Train;
   Empty : Train;
begin
   Long.Engine := new Car;
   Long.Engine.Behind := new Car'(5, null);
   Long.Engine.Behind.Behind := new Car'(6, null);
   Empty := Long;
   Ada.Text_IO.Put_Line (Integer'Image (Empty.Length));
   Long := Empty;
   Ada.Text_IO.Put_Line (Integer'Image (Long.Length));
end Main;
